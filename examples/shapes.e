-- Shapes: a parent, and heirs that redefine what it has.
--
-- A call runs the version of the object's own class, whatever the type of its target says. A redefined routine keeps the
-- contract that it inherits, so `largest` may rely on the postcondition of `area` for shapes that it has never heard of.
-- There are no deferred classes: the parent's version is a whole routine.
--
--     ./scoop run examples/shapes.e

class APPLICATION

create make

feature

	square: SQUARE
	strip: STRIP

	make
		do
			create square.make (4)
			create strip.make (3, 5)
			print (larger (square, strip).area)
		end

	larger (a, b: SHAPE): SHAPE
		do
			if a.area >= b.area then
				Result := a
			else
				Result := b
			end
		end

end

class SHAPE

feature

	area: INTEGER
		do
		ensure
			not_negative: Result >= 0
		end

end

class SQUARE

inherit
	SHAPE redefine area end

create make

feature

	side: INTEGER

	make (length: INTEGER)
		require
			length >= 0
		do
			side := length
		end

	area: INTEGER
		do
			Result := side * side
		end

invariant

	side >= 0

end

class STRIP

inherit
	SHAPE redefine area end

create make

feature

	width, height: INTEGER

	make (w, h: INTEGER)
		require
			w >= 0;
			h >= 0
		do
			width := w
			height := h
		end

	area: INTEGER
		do
			Result := width * height
		end

invariant

	width >= 0 and height >= 0

end
