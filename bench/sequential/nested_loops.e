-- Nested loops over locals: the primes below 20,000, by division.
class APPLICATION

create make

feature

	make
		local
			n, d, count: INTEGER
			prime: BOOLEAN
		do
			from n := 2 until n >= 20000 loop
				prime := True
				from d := 2 until not prime or d * d > n loop
					if n \\ d = 0 then
						prime := False
					end
					d := d + 1
				end
				if prime then
					count := count + 1
				end
				n := n + 1
			end
			print (count)
		end

end
