class APPLICATION create make
feature
	account: ACCOUNT
	make do create account account.deposit (50) print (account.balance) end
end
class ACCOUNT
feature
	balance: INTEGER
	deposit (sum: INTEGER)
		require
			sum > 0
		do
			balance := balance + sum
		ensure
			balance = old balance + sum
		end
end
