class APPLICATION create make
feature
	friend: detachable APPLICATION
	make do if attached friend as f then f.greet else print ("alone") end end
	greet do print ("hello") end
end
