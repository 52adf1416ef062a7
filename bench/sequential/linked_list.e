-- A linked list of 60,000 nodes, made by a creation with two actuals, and walked.
class APPLICATION

create make

feature

	make
		local
			first, node: detachable NODE
			i, sum: INTEGER
		do
			from i := 1 until i > 60000 loop
				create first.make (i, first)
				i := i + 1
			end
			from node := first until node = Void loop
				if attached node as n then
					sum := sum + n.item
					node := n.next
				end
			end
			print (sum)
		end

end

class NODE

create make

feature

	item: INTEGER
	next: detachable NODE

	make (i: INTEGER; n: detachable NODE)
		do
			item := i
			next := n
		end

end
