local Application = {}
Application.__index = Application

function Application:make()
	print(self:fibonacci(27))
end

function Application:fibonacci(n)
	local result = 0
	if n < 2 then
		result = n
	else
		result = self:fibonacci(n - 1) + self:fibonacci(n - 2)
	end
	return result
end

setmetatable({}, Application):make()
