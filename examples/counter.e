class APPLICATION create make
feature
	n: INTEGER
	make do raise print (n) end
	raise do n := n + 1 end
invariant n >= 0
end
