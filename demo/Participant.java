// A participant at 127.0.0.1:9001, or at the port that is given, which prints each call and answers 200: java demo/Participant.java [PORT].
import com.sun.net.httpserver.HttpServer;
import java.net.InetSocketAddress;

class Participant {
    public static void main(String[] words) throws Exception {
        int port = words.length > 0 ? Integer.parseInt(words[0]) : 9001;
        HttpServer server = HttpServer.create(new InetSocketAddress("127.0.0.1", port), 0);
        server.createContext("/", call -> {
            String body = new String(call.getRequestBody().readAllBytes(), "UTF-8");
            String lra = call.getRequestHeaders().getFirst("Long-Running-Action");
            System.out.println((call.getRequestMethod() + " " + call.getRequestURI() + " " + (lra == null ? "" : lra) + " " + body).strip());
            // -1 is an answer without a body. 0 would send it in chunks, which the coordinator doesn't take.
            call.sendResponseHeaders(200, -1);
            call.close();
        });
        server.start();
    }
}
