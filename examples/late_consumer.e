-- A consumer that waits for good: it takes one more than the producer makes.
--
-- `take` waits until the buffer has something. When the producer is done nobody is left to fill it, so the consumer waits on, and
-- the request behind that, to tell its sum, is never taken. A run ends with status 4.
--
--     ./scoop run --explain examples/late_consumer.e

class APPLICATION

create make

feature

	make
		local
			buffer: separate BUFFER
			producer: separate PRODUCER
			consumer: separate CONSUMER
		do
			create buffer
			create producer.make (buffer)
			create consumer.make (buffer)
			separate producer as p, consumer as c do
				p.produce (2)
				c.consume (3)
				c.tell
			end
		end

end

class BUFFER

feature

	count, last: INTEGER

	is_empty: BOOLEAN
		do
			Result := count = 0
		end

	put (n: INTEGER)
		require
			has_room: is_empty
		do
			last := n
			count := 1
		end

	remove
		do
			count := 0
		end

end

class PRODUCER

create make

feature

	buffer: separate BUFFER

	make (b: separate BUFFER)
		do
			buffer := b
		end

	produce (n: INTEGER)
		local
			i: INTEGER
		do
			from
				i := 1
			until
				i > n
			loop
				put (buffer, i)
				i := i + 1
			end
		end

	put (b: separate BUFFER; n: INTEGER)
		require
			has_room: b.is_empty
		do
			b.put (n)
		end

end

class CONSUMER

create make

feature

	buffer: separate BUFFER

	sum: INTEGER

	make (b: separate BUFFER)
		do
			buffer := b
		end

	consume (n: INTEGER)
		local
			i: INTEGER
		do
			from
				i := 1
			until
				i > n
			loop
				take (buffer)
				i := i + 1
			end
		end

	take (b: separate BUFFER)
		require
			filled: not b.is_empty
		do
			sum := sum + b.last
			b.remove
		end

	tell
		do
			print (sum)
		end

end
