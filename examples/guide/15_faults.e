class APPLICATION create make
feature
	counter: separate COUNTER
	make
		local step: INTEGER
		do
			create counter
			counter.raise
			separate counter as c do c.raise (1) end
			cuonter := Void
		end
end
class COUNTER
feature
	count: INTEGER
	raise do count := True end
end
