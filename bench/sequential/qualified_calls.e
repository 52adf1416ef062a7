-- Calls of another object: a redefined procedure, a function and an attribute a round.
class APPLICATION

create make

feature

	make
		local
			i, sum: INTEGER
			c: COUNTER
			d: DOUBLE
		do
			create d.make
			c := d
			from i := 0 until i >= 300000 loop
				c.add (i)
				if c.is_even then
					sum := sum + c.count
				end
				i := i + 1
			end
			print (sum)
		end

end

class COUNTER

create make

feature

	count: INTEGER

	make
		do
		end

	add (n: INTEGER)
		do
			count := count + n
		end

	is_even: BOOLEAN
		do
			Result := count \\ 2 = 0
		end

end

class DOUBLE

inherit
	COUNTER redefine add end

create make

feature

	add (n: INTEGER)
		do
			count := count + 2 * n
		end

end
