-- Functions with locals and a Result: the longest of the sequences that begin below 10,000.
class APPLICATION

create make

feature

	longest: INTEGER

	make
		local
			i, steps: INTEGER
		do
			from i := 1 until i >= 10000 loop
				steps := length (i)
				if steps > longest and then i /= 0 then
					longest := steps
				end
				i := i + 1
			end
			print (longest)
		end

	length (start: INTEGER): INTEGER
		local
			n: INTEGER
		do
			from n := start until n = 1 loop
				if is_even (n) then
					n := n // 2
				else
					n := 3 * n + 1
				end
				Result := Result + 1
			end
		end

	is_even (n: INTEGER): BOOLEAN
		do
			Result := n \\ 2 = 0
		end

end
