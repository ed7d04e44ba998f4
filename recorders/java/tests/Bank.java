/** Transfers between accounts, each of which is locked from outside. */
public class Bank {
    static class Account {
        int balance = 100;
    }

    static void transfer(Account from, Account to, int amount) {
        synchronized (from) {
            synchronized (to) {
                from.balance -= amount;
                to.balance += amount;
            }
        }
    }

    public static void main(String[] words) throws InterruptedException {
        Account mine = new Account();
        Account yours = new Account();
        Thread first = new Thread(() -> transfer(mine, yours, 5));
        first.start();
        first.join();
        Thread second = new Thread(() -> transfer(yours, mine, 5));
        second.start();
        second.join();
    }
}
