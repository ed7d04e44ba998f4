/** Takes no lock of its own. */
public class Nothing {
    public static void main(String[] words) throws InterruptedException {
        Thread thread = new Thread(() -> System.out.println("x"));
        thread.start();
        thread.join();
        System.exit(words.length > 0 ? Integer.parseInt(words[0]) : 0);
    }
}
