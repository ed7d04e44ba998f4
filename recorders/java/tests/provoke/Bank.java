/** Synchronized methods of many objects of one class. */
final class Bank {
    private int amount;

    synchronized void payTo(Bank other, int sum) {
        amount -= sum;
        other.take(sum);
    }

    synchronized int take(int sum) {
        if (sum < 0) throw new IllegalArgumentException();
        return amount += sum;
    }

    public static void main(String[] words) throws InterruptedException {
        Bank[] all = new Bank[8];
        for (int at = 0; at < all.length; at++) all[at] = new Bank();
        try {
            all[0].payTo(all[1], -1);
        } catch (IllegalArgumentException negative) {
            System.out.println(Thread.holdsLock(all[0]) + " " + Thread.holdsLock(all[1]));
        }
        Apart.run(() -> downwards(all), () -> upwards(all));
    }

    private static void downwards(Bank[] all) {
        for (int at = 1; at < all.length; at++) all[at - 1].payTo(all[at], 1);
    }

    private static void upwards(Bank[] all) {
        for (int at = 1; at < all.length; at++) all[at].payTo(all[at - 1], 1);
    }
}
