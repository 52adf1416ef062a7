-- One handler that counts until its turns are used up.
class APPLICATION

create make

feature

	total: INTEGER

	make
		do
			from
			until
				False
			loop
				add (1)
			end
		end

	add (n: INTEGER)
		do
			total := total + n
		end

end
