class APPLICATION create make
feature
	balance: INTEGER
	make do print ("paying") balance := balance - 50 end
invariant
	never_overdrawn: balance >= 0
end
