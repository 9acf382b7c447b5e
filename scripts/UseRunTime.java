import com.sun.net.httpserver.HttpExchange;
import com.sun.net.httpserver.HttpsConfigurator;
import com.sun.net.httpserver.HttpsServer;
import java.io.DataInputStream;
import java.io.FileInputStream;
import java.io.IOException;
import java.io.InputStream;
import java.io.StringReader;
import java.io.StringWriter;
import java.lang.management.ManagementFactory;
import java.net.InetAddress;
import java.net.InetSocketAddress;
import java.net.URI;
import java.net.http.HttpClient;
import java.net.http.HttpRequest;
import java.net.http.HttpResponse;
import java.nio.file.FileSystems;
import java.nio.file.Files;
import java.nio.file.Path;
import java.security.KeyStore;
import java.security.Provider;
import java.util.ServiceLoader;
import java.util.stream.Collectors;
import java.util.stream.Stream;
import javax.management.MBeanServer;
import javax.management.ObjectName;
import javax.net.ssl.KeyManagerFactory;
import javax.net.ssl.SSLContext;
import javax.net.ssl.TrustManagerFactory;
import javax.xml.transform.Transformer;
import javax.xml.transform.TransformerFactory;
import javax.xml.transform.stream.StreamResult;
import javax.xml.transform.stream.StreamSource;

/**
 * Uses a run-time of the modules that scripts/run_times links, and prints a line for each use, the same from
 * every run-time of these modules and of one JDK: {@code java UseRunTime KEYS}, KEYS a key store of the
 * password "secret" with a key of an elliptic curve.
 */
class UseRunTime {
    /** What the management bean below offers. */
    public interface CountMBean {
        int getCount();

        void raise(int by);
    }

    public static class Count implements CountMBean {
        private int count;

        @Override
        public int getCount() {
            return count;
        }

        @Override
        public void raise(int by) {
            count += by;
        }
    }

    public static void main(String[] words) throws Exception {
        System.out.println("modules " + Stream.of(ModuleLayer.boot().modules()).flatMap(it -> it.stream())
                .map(Module::getName).sorted().collect(Collectors.joining(" ")));
        System.out.println("https " + https(words[0]));
        System.out.println("xslt " + xslt());
        System.out.println("services " + services());
        System.out.println("jrt " + jrt());
        System.out.println("jmx " + jmx());
        System.out.println("sql " + java.sql.Timestamp.valueOf("2026-12-01 13:00:00").toLocalDateTime());
    }

    /** A server with TLS answers a client of java.net.http. */
    private static String https(String keys) throws Exception {
        char[] secret = "secret".toCharArray();
        KeyStore store = KeyStore.getInstance("PKCS12");
        try (InputStream file = new FileInputStream(keys)) {
            store.load(file, secret);
        }
        KeyManagerFactory own = KeyManagerFactory.getInstance("PKIX");
        own.init(store, secret);
        TrustManagerFactory trusted = TrustManagerFactory.getInstance("PKIX");
        trusted.init(store);
        SSLContext context = SSLContext.getInstance("TLS");
        context.init(own.getKeyManagers(), trusted.getTrustManagers(), null);
        HttpsServer server = HttpsServer.create(new InetSocketAddress(InetAddress.getByName("localhost"), 0), 0);
        server.setHttpsConfigurator(new HttpsConfigurator(context));
        server.createContext("/", UseRunTime::reply);
        server.start();
        try {
            URI address = URI.create("https://localhost:" + server.getAddress().getPort() + "/");
            HttpResponse<String> reply = HttpClient.newBuilder().sslContext(context).build()
                    .send(HttpRequest.newBuilder(address).build(), HttpResponse.BodyHandlers.ofString());
            return reply.statusCode() + " " + reply.body() + " " + reply.sslSession().get().getCipherSuite();
        } finally {
            server.stop(0);
        }
    }

    private static void reply(HttpExchange exchange) throws IOException {
        byte[] bytes = "hello".getBytes();
        exchange.sendResponseHeaders(200, bytes.length);
        exchange.getResponseBody().write(bytes);
        exchange.close();
    }

    /** A style sheet turns one element into another. */
    private static String xslt() throws Exception {
        String sheet = "<xsl:stylesheet version='1.0' xmlns:xsl='http://www.w3.org/1999/XSL/Transform'>"
                + "<xsl:output omit-xml-declaration='yes'/>"
                + "<xsl:template match='/a'><b><xsl:value-of select='@to'/></b></xsl:template></xsl:stylesheet>";
        Transformer transformer = TransformerFactory.newInstance().newTransformer(new StreamSource(new StringReader(sheet)));
        StringWriter out = new StringWriter();
        transformer.transform(new StreamSource(new StringReader("<a to='world'/>")), new StreamResult(out));
        return out.toString();
    }

    /** The modules that provide a service of java.base. */
    private static String services() {
        return ServiceLoader.load(Provider.class).stream().map(it -> it.type().getModule().getName())
                .sorted().distinct().collect(Collectors.joining(" "));
    }

    /** The image as a file system: a package is told to be a module's, and a class is found by it. */
    private static String jrt() throws Exception {
        Path of = FileSystems.getFileSystem(URI.create("jrt:/")).getPath("/packages/java.sql/java.sql");
        try (DataInputStream bytes = new DataInputStream(Files.newInputStream(of.resolve("java/sql/Driver.class")))) {
            return Files.readSymbolicLink(of) + " " + Integer.toHexString(bytes.readInt());
        }
    }

    /** A management bean is called by its name. */
    private static String jmx() throws Exception {
        MBeanServer server = ManagementFactory.getPlatformMBeanServer();
        ObjectName name = new ObjectName("run.time:type=Count");
        server.registerMBean(new Count(), name);
        server.invoke(name, "raise", new Object[] {3}, new String[] {"int"});
        return server.getAttribute(name, "Count") + " " + ManagementFactory.getRuntimeMXBean().getSpecVersion();
    }
}
