local Application = {}
Application.__index = Application

function Application:make()
	self.longest = 0
	local i, steps = 1, 0
	while not (i >= 10000) do
		steps = self:length(i)
		if steps > self.longest and i ~= 0 then
			self.longest = steps
		end
		i = i + 1
	end
	print(self.longest)
end

function Application:length(start)
	local result = 0
	local n = start
	while not (n == 1) do
		if self:is_even(n) then
			n = n // 2
		else
			n = 3 * n + 1
		end
		result = result + 1
	end
	return result
end

function Application:is_even(n)
	return n % 2 == 0
end

setmetatable({}, Application):make()
