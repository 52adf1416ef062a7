-- A loop with a call a round, whose counter and total are attributes.
class APPLICATION

create make

feature

	i, total: INTEGER

	make
		do
			from i := 0 until i >= 2000000 loop
				add (i)
				i := i + 1
			end
			print (total)
		end

	add (n: INTEGER)
		do
			total := total + n
		end

end
