-- A bank transfer over two accounts, each on a handler of its own.
--
-- `transfer` reserves both accounts at once, so nobody sees the sum on neither or on both. Its precondition is waited
-- for: a transfer that isn't covered begins once it is.
--
--     ./scoop run examples/transfer.e
--     ./scoop test --search examples/transfer.e

class APPLICATION

create make

feature

	here, there: separate ACCOUNT

	make
		do
			create here.open (100)
			create there.open (0)
			transfer (here, there, 70)
			report (here, there)
		end

	transfer (from_account, to_account: separate ACCOUNT; sum: INTEGER)
		require
			positive: sum > 0;
			covered: from_account.balance >= sum
		do
			from_account.withdraw (sum)
			to_account.deposit (sum)
		end

	report (a, b: separate ACCOUNT)
		do
			print (a.balance)
			print (" and ")
			print (b.balance)
		end

end

class ACCOUNT

create open

feature

	balance: INTEGER

	open (sum: INTEGER)
		do
			balance := sum
		end

	deposit (sum: INTEGER)
		do
			balance := balance + sum
		end

	withdraw (sum: INTEGER)
		require
			balance >= sum
		do
			balance := balance - sum
		end

invariant

	balance >= 0

end

class TESTS

inherit APPLICATION

create test_transfer, test_late_deposit

feature

	test_transfer
		do
			create here.open (100)
			create there.open (0)
			transfer (here, there, 70)
			hold (here, there, 30, 70)
		end

	test_late_deposit
			-- A transfer that isn't covered begins once a deposit has come.
		local
			giver: separate GIVER
		do
			create here.open (0)
			create there.open (0)
			create giver.make (here)
			separate giver as g do
				g.give (70)
			end
			transfer (here, there, 70)
			hold (here, there, 0, 70)
		end

	hold (a, b: separate ACCOUNT; first, second: INTEGER)
		do
			check
				a.balance = first and b.balance = second
			end
		end

end

class GIVER

create make

feature

	account: separate ACCOUNT

	make (a: separate ACCOUNT)
		do
			account := a
		end

	give (sum: INTEGER)
		do
			separate account as a do
				a.deposit (sum)
			end
		end

end
