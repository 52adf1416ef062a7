local Application = {}
Application.__index = Application

function Application:make()
	self.total = 0
	local i = 0
	while not (i >= 2000000) do
		self:add(i)
		i = i + 1
	end
	print(self.total)
end

function Application:add(n)
	self.total = self.total + n
end

setmetatable({}, Application):make()
