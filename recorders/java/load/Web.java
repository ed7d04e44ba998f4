import jakarta.servlet.http.HttpServlet;
import jakarta.servlet.http.HttpServletRequest;
import jakarta.servlet.http.HttpServletResponse;
import java.io.File;
import java.io.IOException;
import java.net.CookieManager;
import java.net.URI;
import java.net.http.HttpClient;
import java.net.http.HttpRequest;
import java.net.http.HttpResponse;
import java.util.concurrent.atomic.AtomicInteger;
import org.apache.catalina.Context;
import org.apache.catalina.startup.Tomcat;

/** Tomcat with a servlet that counts in a session, and clients that send requests: FOLDER CLIENTS REQUESTS. */
public class Web {
    public static class Counter extends HttpServlet {
        @Override
        protected void doGet(HttpServletRequest request, HttpServletResponse response) throws IOException {
            AtomicInteger count = (AtomicInteger) request.getSession().getAttribute("count");
            if (count == null) request.getSession().setAttribute("count", count = new AtomicInteger());
            response.getWriter().println(count.incrementAndGet());
            if (count.get() % 50 == 0) request.getSession().invalidate();
        }
    }

    private static void asks(URI uri, int requests) {
        HttpClient client = HttpClient.newBuilder().cookieHandler(new CookieManager()).build();
        try {
            for (int count = 0; count < requests; count++) {
                HttpResponse<String> answer = client.send(HttpRequest.newBuilder(uri).build(),
                        HttpResponse.BodyHandlers.ofString());
                if (answer.statusCode() != 200) throw new IllegalStateException(answer.toString());
            }
        } catch (IOException | InterruptedException error) {
            throw new IllegalStateException(error);
        }
    }

    public static void main(String[] words) throws Exception {
        Tomcat tomcat = new Tomcat();
        tomcat.setBaseDir(words[0]);
        tomcat.setHostname("127.0.0.1");
        tomcat.setPort(0);
        tomcat.getConnector().setProperty("address", "127.0.0.1");
        Context context = tomcat.addContext("", new File(words[0]).getAbsolutePath());
        Tomcat.addServlet(context, "counter", new Counter());
        context.addServletMappingDecoded("/", "counter");
        tomcat.start();
        URI uri = URI.create("http://127.0.0.1:" + tomcat.getConnector().getLocalPort() + "/");
        Thread[] clients = new Thread[Integer.parseInt(words[1])];
        for (int number = 0; number < clients.length; number++) {
            clients[number] = new Thread(() -> asks(uri, Integer.parseInt(words[2])));
            clients[number].start();
        }
        for (Thread client : clients) client.join();
        tomcat.stop();
        tomcat.destroy();
        System.out.println("served");
    }
}
