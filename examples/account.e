-- An account with contracts.
--
-- `require` says what a caller has to see to, `ensure` what a routine has done, and `old` is a value from before it. The
-- invariant holds for each account that is left alone: it is tested where a call with a target, or a creation, ends.
--
--     ./scoop run examples/account.e
--     ./scoop test examples/account.e

class APPLICATION

create make

feature

	account: ACCOUNT

	make
		do
			create account.open (100)
			account.deposit (50)
			account.withdraw (30)
			print (account.balance)
		end

end

class ACCOUNT

create open

feature

	balance: INTEGER

	open (sum: INTEGER)
		require
			not_negative: sum >= 0
		do
			balance := sum
		ensure
			balance = sum
		end

	deposit (sum: INTEGER)
		require
			positive: sum > 0
		do
			balance := balance + sum
		ensure
			added: balance = old balance + sum
		end

	withdraw (sum: INTEGER)
		require
			positive: sum > 0;
			covered: sum <= balance
		do
			balance := balance - sum
		ensure
			taken: balance = old balance - sum
		end

invariant

	never_overdrawn: balance >= 0

end

class TESTS

create test_deposit, test_withdraw

feature

	test_deposit
		local
			account: ACCOUNT
		do
			create account.open (100)
			account.deposit (50)
			check
				account.balance = 150
			end
		end

	test_withdraw
			-- All of it can be taken.
		local
			account: ACCOUNT
		do
			create account.open (100)
			account.withdraw (100)
			check
				account.balance = 0
			end
		end

end
