-- 200,000 commands to another handler, which aren't waited for, 1,000 in a reservation.
class APPLICATION

create make

feature

	make
		local
			session: INTEGER
			cell: separate CELL
		do
			create cell.make
			from
			until
				session = 200
			loop
				session := session + 1
				tell (cell)
			end
			separate cell as c do
				print (c.item)
			end
		end

	tell (cell: separate CELL)
		local
			i: INTEGER
		do
			from
			until
				i = 1000
			loop
				i := i + 1
				cell.add (i)
			end
		end

end

class CELL

create make

feature

	item: INTEGER

	make
		do
		end

	add (n: INTEGER)
		do
			item := item + n
		end

end
