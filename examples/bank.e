-- A bank whose clerk pays out more than an account holds.
--
-- Each account belongs to a handler of its own. A deposit of nothing breaks the precondition of `deposit`: the account refuses the
-- request, and since nobody waits for it, only the report counts it. The withdrawal waits for its money instead, since its
-- precondition speaks of an account that it has just reserved: 80 are never there, and the clerk waits for good.
--
--     ./scoop run --explain examples/bank.e

class APPLICATION

create make

feature

	make
		local
			account: separate ACCOUNT
			clerk: separate CLERK
		do
			create account
			create clerk.make (account)
			separate account as a, clerk as c do
				a.deposit (50)
				a.deposit (0)
				c.pay (30)
				c.pay (80)
			end
		end

end

class ACCOUNT

feature

	balance: INTEGER

	deposit (amount: INTEGER)
		require
			something: amount > 0
		do
			balance := balance + amount
		end

	withdraw (amount: INTEGER)
		require
			covered: amount <= balance
		do
			balance := balance - amount
		end

invariant

	not_negative: balance >= 0

end

class CLERK

create make

feature

	account: separate ACCOUNT

	make (a: separate ACCOUNT)
		do
			account := a
		end

	pay (amount: INTEGER)
		do
			withdraw (account, amount)
			print (amount)
		end

	withdraw (a: separate ACCOUNT; amount: INTEGER)
		require
			covered: amount <= a.balance
		do
			a.withdraw (amount)
		end

end
