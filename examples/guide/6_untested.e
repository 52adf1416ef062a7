class APPLICATION create make
feature
	friend: detachable APPLICATION
	make do friend.greet end
	greet do print ("hello") end
end
