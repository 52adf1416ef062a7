class APPLICATION create make
feature
	count: INTEGER
	make do raise raise print (count) end
	raise do count := count + 1 end
end
