-- A failure that goes from handler to handler.
--
-- The shop asks its store for a price, and the store asks a scale. The scale divides by zero and fails; the store waited for it
-- and fails in turn, and so does the shop.
--
--     ./scoop run --explain examples/failing_chain.e

class APPLICATION

create make

feature

	make
		local
			scale: separate SCALE
			store: separate STORE
		do
			create scale
			create store.make (scale)
			separate store as s do
				print (s.price (100, 0))
			end
		end

end

class STORE

create make

feature

	scale: separate SCALE

	make (s: separate SCALE)
		do
			scale := s
		end

	price (total, pieces: INTEGER): INTEGER
		do
			separate scale as s do
				Result := s.share (total, pieces)
			end
		end

end

class SCALE

feature

	share (total, pieces: INTEGER): INTEGER
		do
			Result := total // pieces
		end

end
