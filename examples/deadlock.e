-- A deadlock, as separate blocks in each other can make one.
--
-- Each of two friends reserves a fork and, while holding it, a second one: the first friend the left and then the right
-- one, the other the right and then the left one. Where both hold their first fork, each waits for good. Nothing is
-- wrong with the text, so `check` says `ok`; a run that comes there stops, reports `waiting` of both, and ends with
-- status 4.
--
-- In the order of `deadlock.record` the one friend has eaten before the other begins, and nobody waits. `philosophers.e`
-- does better: it reserves both forks at once.
--
--     ./scoop run examples/deadlock.e
--     ./scoop replay examples/deadlock.record examples/deadlock.e

class APPLICATION

create make

feature

	left, right: separate FORK

	make
		local
			one, other: separate FRIEND
		do
			create left
			create right
			create one.make (left, right)
			create other.make (right, left)
			separate one as a, other as b do
				a.eat
				b.eat
			end
		end

end

class FORK

feature

	uses: INTEGER

	use
		do
			uses := uses + 1
		end

end

class FRIEND

create make

feature

	first, second: separate FORK

	make (f, s: separate FORK)
		do
			first := f
			second := s
		end

	eat
		do
			separate first as f do
				f.use
				separate second as s do
					s.use
				end
			end
		end

end
