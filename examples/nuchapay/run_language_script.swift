actor Account { var balance = 1; func withdraw(n) { balance = balance - n; return balance; } }
root a = Account.withdraw(1);
