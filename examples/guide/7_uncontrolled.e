class APPLICATION create make
feature
	counter: separate COUNTER
	make do create counter counter.raise end
end
class COUNTER
feature
	count: INTEGER
	raise do count := count + 1 end
end
