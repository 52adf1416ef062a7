class APPLICATION create make
feature
	make do print ("hello%N") end
end
