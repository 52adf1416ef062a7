local Node = {}
Node.__index = Node

function Node.make(i, n)
	local self = setmetatable({}, Node)
	self.item = i
	self.next = n
	return self
end

local Application = {}
Application.__index = Application

function Application:make()
	local first, node = nil, nil
	local i, sum = 1, 0
	while not (i > 60000) do
		first = Node.make(i, first)
		i = i + 1
	end
	node = first
	while not (node == nil) do
		local n = node
		if n then
			sum = sum + n.item
			node = n.next
		end
	end
	print(sum)
end

setmetatable({}, Application):make()
