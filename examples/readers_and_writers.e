-- Readers and writers: many may read a document at a time, but only one may write, and nobody reads meanwhile.
--
-- A gate counts who is in. Readers and writers reserve the gate to come in and to go out, and wait by a precondition
-- until they may; while they read or write the gate is free. The document is reserved for each single look at it alone.
--
--     ./scoop run examples/readers_and_writers.e

class APPLICATION

create make

feature

	gate: separate GATE
	document: separate DOCUMENT

	make
		do
			create gate
			create document
			start_writer
			start_reader
			start_reader
		end

	start_reader
		local
			reader: separate READER
		do
			create reader.make (gate, document)
			separate reader as r do
				r.run
			end
		end

	start_writer
		local
			writer: separate WRITER
		do
			create writer.make (gate, document)
			separate writer as w do
				w.run
			end
		end

end

class GATE

feature

	readers: INTEGER
	is_written: BOOLEAN

	let_reader_in
		require
			not is_written
		do
			readers := readers + 1
		end

	let_reader_out
		require
			readers > 0
		do
			readers := readers - 1
		end

	let_writer_in
		require
			not is_written;
			readers = 0
		do
			is_written := True
		end

	let_writer_out
		require
			is_written
		do
			is_written := False
		end

invariant

	readers >= 0;
	alone: is_written implies readers = 0

end

class DOCUMENT

feature

	version: INTEGER

	revise
		do
			version := version + 1
		end

end

class VISITOR

create make

feature

	gate: separate GATE
	document: separate DOCUMENT

	make (g: separate GATE; d: separate DOCUMENT)
		do
			gate := g
			document := d
		end

end

class READER

inherit
	VISITOR

create make

feature

	run
		do
			enter (gate)
			separate document as d do
				print (d.version)
			end
			leave (gate)
		end

	enter (g: separate GATE)
		require
			not g.is_written
		do
			g.let_reader_in
		end

	leave (g: separate GATE)
		do
			g.let_reader_out
		end

end

class WRITER

inherit
	VISITOR

create make

feature

	run
		do
			enter (gate)
			separate document as d do
				d.revise
			end
			leave (gate)
		end

	enter (g: separate GATE)
		require
			not g.is_written;
			g.readers = 0
		do
			g.let_writer_in
		end

	leave (g: separate GATE)
		do
			g.let_writer_out
		end

end
