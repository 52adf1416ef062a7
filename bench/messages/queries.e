-- 200,000 queries to another handler, each waited for, 1,000 in a reservation.
class APPLICATION

create make

feature

	make
		local
			session, sum: INTEGER
			cell: separate CELL
		do
			create cell.make
			from
			until
				session = 200
			loop
				session := session + 1
				sum := sum + asked (cell)
			end
			print (sum)
		end

	asked (cell: separate CELL): INTEGER
		local
			i: INTEGER
		do
			from
			until
				i = 1000
			loop
				i := i + 1
				Result := Result + cell.next
			end
		end

end

class CELL

create make

feature

	item: INTEGER

	make
		do
		end

	next: INTEGER
		do
			item := item + 1
			Result := item
		end

end
