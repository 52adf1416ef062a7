-- Philosophers that starve: each takes the left fork and, while holding it, the right one.
--
-- Where all have taken their left fork, each waits for the next one's for good. `check` can't see that; a run ends with status 4,
-- and says who waits for whom with `--explain`. `philosophers.e` takes both forks at once, and all eat.
--
--     ./scoop run --explain examples/hungry_philosophers.e

class APPLICATION

create make

feature

	make
		local
			first, second, third: separate FORK
			one, two, three: separate PHILOSOPHER
		do
			create first
			create second
			create third
			create one.make (first, second)
			create two.make (second, third)
			create three.make (third, first)
			separate one as a, two as b, three as c do
				a.eat
				b.eat
				c.eat
			end
		end

end

class FORK

feature

	uses: INTEGER

	use
		do
			uses := uses + 1
		end

end

class PHILOSOPHER

create make

feature

	left, right: separate FORK

	make (l, r: separate FORK)
		do
			left := l
			right := r
		end

	eat
		do
			separate left as l do
				l.use
				take_right
			end
		end

	take_right
		do
			separate right as r do
				r.use
			end
		end

end
