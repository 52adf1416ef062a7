-- A bounded buffer between a producer and a consumer.
--
-- Buffer, producer and consumer are three handlers. `x` in `put_into` and `take_from` is an attached separate formal, so
-- its handler is reserved for the whole routine; a precondition that names it is waited for, and asks nobody to
-- notify anybody. The buffer is a ring of objects of its own handler.
--
--     ./scoop run examples/bounded_buffer.e
--     ./scoop test --search examples/bounded_buffer.e

class APPLICATION

create make

feature

	buffer: separate BUFFER
	producer: separate PRODUCER
	consumer: separate CONSUMER

	make
		do
			create buffer.make (3)
			create producer.make (buffer, 10)
			create consumer.make (buffer, 10)
			start (producer, consumer)
		end

	start (p: separate PRODUCER; c: separate CONSUMER)
		do
			p.run
			c.run
		end

end

class BUFFER

create make

feature

	capacity, count: INTEGER

	make (size: INTEGER)
		require
			size > 0
		local
			slot: SLOT
			n: INTEGER
		do
			create first
			from
				slot := first
				n := 1
			until
				n = size
			loop
				create next
				slot.set_next (next)
				slot := next
				n := n + 1
			end
			slot.set_next (first)
			next := first
			capacity := size
		end

	put (value: INTEGER)
		require
			room: count < capacity
		do
			next.set_item (value)
			next := next.next
			count := count + 1
		ensure
			count = old count + 1
		end

	item: INTEGER
			-- The oldest value.
		require
			some: count > 0
		do
			Result := first.item
		end

	remove
		require
			some: count > 0
		do
			first := first.next
			count := count - 1
		ensure
			count = old count - 1
		end

feature {NONE}

	first: SLOT
			-- The slot of the oldest value.
	next: SLOT
			-- The slot for the next one.

invariant

	0 <= count and count <= capacity

end

class SLOT

feature

	item: INTEGER
	next: SLOT

	set_item (value: INTEGER)
		do
			item := value
		end

	set_next (slot: SLOT)
		do
			next := slot
		end

end

class PRODUCER

create make

feature

	buffer: separate BUFFER
	most: INTEGER

	make (b: separate BUFFER; n: INTEGER)
		do
			buffer := b
			most := n
		end

	run
		local
			n: INTEGER
		do
			from
			until
				n = most
			loop
				n := n + 1
				put_into (buffer, n)
			end
		end

	put_into (x: separate BUFFER; value: INTEGER)
		require
			x.count < x.capacity
		do
			x.put (value)
		end

end

class CONSUMER

create make

feature

	buffer: separate BUFFER
	most: INTEGER

	make (b: separate BUFFER; n: INTEGER)
		do
			buffer := b
			most := n
		end

	run
		local
			n: INTEGER
		do
			from
			until
				n = most
			loop
				take_from (buffer)
				n := n + 1
			end
		end

	take_from (x: separate BUFFER)
		require
			x.count > 0
		do
			print (x.item)
			print ("%N")
			x.remove
		end

end

class TESTS

create test_ring, test_together

feature

	test_ring
			-- Values leave in the order in which they came.
		local
			buffer: BUFFER
		do
			create buffer.make (2)
			buffer.put (1)
			buffer.put (2)
			buffer.remove
			buffer.put (3)
			check
				buffer.item = 2 and buffer.count = 2
			end
		end

	test_together
			-- A producer and a consumer are done, whichever comes first.
		local
			buffer: separate BUFFER
			producer: separate PRODUCER
			consumer: separate CONSUMER
		do
			create buffer.make (1)
			create producer.make (buffer, 2)
			create consumer.make (buffer, 2)
			separate producer as p, consumer as c do
				p.run
				c.run
				check
					p.most = c.most
				end
			end
			separate buffer as b do
				check
					b.count = 0
				end
			end
		end

end
