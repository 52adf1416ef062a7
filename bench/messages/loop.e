-- One handler that counts to 2,000,000, with a call a round: 6 million turns.
class APPLICATION

create make

feature

	i, total: INTEGER

	make
		do
			from
			until
				i = 2000000
			loop
				add (1)
				i := i + 1
			end
			print (total)
		end

	add (n: INTEGER)
		do
			total := total + n
		end

end
