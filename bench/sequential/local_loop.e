-- The same loop, whose counter is a local.
class APPLICATION

create make

feature

	total: INTEGER

	make
		local
			i: INTEGER
		do
			from i := 0 until i >= 2000000 loop
				add (i)
				i := i + 1
			end
			print (total)
		end

	add (n: INTEGER)
		do
			total := total + n
		end

end
