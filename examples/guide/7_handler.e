class APPLICATION create make
feature
	counter: separate COUNTER
	make do create counter separate counter as c do c.raise c.raise print (c.count) end end
end
class COUNTER
feature
	count: INTEGER
	raise do count := count + 1 end
end
