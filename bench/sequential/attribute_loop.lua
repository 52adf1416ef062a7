local Application = {}
Application.__index = Application

function Application:make()
	self.i = 0
	self.total = 0
	while not (self.i >= 2000000) do
		self:add(self.i)
		self.i = self.i + 1
	end
	print(self.total)
end

function Application:add(n)
	self.total = self.total + n
end

setmetatable({}, Application):make()
