local Counter = {}
Counter.__index = Counter

function Counter:add(n)
	self.count = self.count + n
end

function Counter:is_even()
	return self.count % 2 == 0
end

local Double = setmetatable({}, { __index = Counter })
Double.__index = Double

function Double.make()
	return setmetatable({ count = 0 }, Double)
end

function Double:add(n)
	self.count = self.count + 2 * n
end

local Application = {}
Application.__index = Application

function Application:make()
	local i, sum = 0, 0
	local c = Double.make()
	while not (i >= 300000) do
		c:add(i)
		if c:is_even() then
			sum = sum + c.count
		end
		i = i + 1
	end
	print(sum)
end

setmetatable({}, Application):make()
