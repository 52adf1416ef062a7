-- A barrier: workers that wait for each other.
--
-- Each worker announces itself at the barrier and then waits until all have come. The wait is a precondition that
-- names the reserved barrier; in between the barrier is free for the others.
--
--     ./scoop run examples/barrier.e
--     ./scoop test --search examples/barrier.e

class APPLICATION

create make

feature

	barrier: separate BARRIER

	make
		local
			n: INTEGER
			worker: separate WORKER
		do
			create barrier.make (3)
			from
			until
				n = 3
			loop
				n := n + 1
				create worker.make (n, barrier)
				separate worker as w do
					w.run
				end
			end
		end

end

class BARRIER

create make

feature

	expected, arrived: INTEGER

	make (count: INTEGER)
		do
			expected := count
		end

	arrive
		do
			arrived := arrived + 1
		end

	is_open: BOOLEAN
		do
			Result := arrived >= expected
		end

end

class WORKER

create make

feature

	number: INTEGER
	barrier: separate BARRIER

	make (n: INTEGER; b: separate BARRIER)
		do
			number := n
			barrier := b
		end

	run
		do
			print ("before ")
			arrive_at (barrier)
			pass (barrier)
			print ("after%N")
		end

	arrive_at (b: separate BARRIER)
		do
			b.arrive
		end

	pass (b: separate BARRIER)
		require
			b.is_open
		do
		end

end

class TESTS

create test_two

feature

	test_two
			-- Both workers pass, whichever of them comes first.
		local
			barrier: separate BARRIER
			one, other: separate WORKER
		do
			create barrier.make (2)
			create one.make (1, barrier)
			create other.make (2, barrier)
			separate one as a, other as b do
				a.run
				b.run
				check
					a.number = 1 and b.number = 2
				end
			end
			separate barrier as b do
				check
					b.arrived = 2
				end
			end
		end

end
