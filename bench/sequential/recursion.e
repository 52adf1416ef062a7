-- A recursive function with one formal, two calls a level.
class APPLICATION

create make

feature

	make
		do
			print (fibonacci (27))
		end

	fibonacci (n: INTEGER): INTEGER
		do
			if n < 2 then
				Result := n
			else
				Result := fibonacci (n - 1) + fibonacci (n - 2)
			end
		end

end
