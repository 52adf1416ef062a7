class APPLICATION create make
feature
	count: INTEGER
	make
		do
			if count < 10 then
				count := count + 1
				make
			else
				print (count)
			end
		end
end
