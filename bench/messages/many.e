-- 64 handlers that count to 50,000, each with a call a round.
class APPLICATION

create make

feature

	make
		local
			n: INTEGER
			counter: separate COUNTER
		do
			from
			until
				n = 64
			loop
				n := n + 1
				create counter.make
				separate counter as c do
					c.count (50000)
				end
			end
		end

end

class COUNTER

create make

feature

	total: INTEGER

	make
		do
		end

	count (limit: INTEGER)
		local
			i: INTEGER
		do
			from
			until
				i = limit
			loop
				add (1)
				i := i + 1
			end
			print (total)
		end

	add (n: INTEGER)
		do
			total := total + n
		end

end
