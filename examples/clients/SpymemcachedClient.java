// What spymemcached does over HOST PORT (Debian: libspymemcached-java, a JDK). A line for each: its name, and yes or no.

import java.net.InetSocketAddress;
import java.util.ArrayList;
import java.util.Arrays;
import java.util.List;
import java.util.concurrent.Callable;
import java.util.logging.Level;
import java.util.logging.Logger;
import net.spy.memcached.CASResponse;
import net.spy.memcached.CASValue;
import net.spy.memcached.MemcachedClient;

public class SpymemcachedClient {
    static MemcachedClient client;

    static void tried(String name, Callable<Boolean> call) {
        try {
            System.out.println(name + (call.call() ? " yes" : " no"));
        } catch (Exception error) {
            System.out.println(name + " no: " + String.valueOf(error).split("\n")[0]);
        }
    }

    static boolean cas() throws Exception {
        CASValue<Object> old = client.gets("sp:a");
        return client.cas("sp:a", old.getCas(), "by cas") == CASResponse.OK
            && client.cas("sp:a", old.getCas(), "late") == CASResponse.EXISTS
            && "by cas".equals(client.get("sp:a"));
    }

    static boolean expiry() throws Exception {
        client.set("sp:short", 1, "x").get();
        client.set("sp:kept", 1, "x").get();
        client.touch("sp:kept", 60).get();
        Thread.sleep(2100);
        return client.get("sp:short") == null && "x".equals(client.get("sp:kept"));
    }

    static boolean large() throws Exception {
        byte[] large = new byte[1000000];
        new java.util.Random(1).nextBytes(large);
        return client.set("sp:large", 0, large).get() && Arrays.equals(large, (byte[]) client.get("sp:large"));
    }

    static boolean many() throws Exception {
        List<String> keys = new ArrayList<>();
        for (int at = 0; at < 100; at++) {
            keys.add("sp:many:" + at);
            client.set("sp:many:" + at, 0, "" + at).get();
        }
        return client.getBulk(keys).size() == 100;
    }

    public static void main(String[] words) throws Exception {
        Logger.getLogger("net.spy").setLevel(Level.OFF);
        System.setProperty("net.spy.log.LoggerImpl", "net.spy.memcached.compat.log.SunLogger");
        client = new MemcachedClient(new InetSocketAddress(words[0], Integer.parseInt(words[1])));
        for (String key : List.of("a", "b", "n", "none")) client.delete("sp:" + key).get();
        tried("set", () -> client.set("sp:a", 0, "one").get());
        tried("get", () -> "one".equals(client.get("sp:a")) && client.get("sp:none") == null);
        tried("add", () -> client.add("sp:b", 0, "two").get() && !client.add("sp:b", 0, "three").get() && "two".equals(client.get("sp:b")));
        tried("replace", () -> client.replace("sp:b", 0, "four").get() && !client.replace("sp:none", 0, "x").get());
        tried("append", () -> client.append("sp:b", "+").get() && "four+".equals(client.get("sp:b")));
        tried("prepend", () -> client.prepend("sp:b", "-").get() && "-four+".equals(client.get("sp:b")));
        tried("cas", SpymemcachedClient::cas);
        tried("incr", () -> client.set("sp:n", 0, "41").get() && client.incr("sp:n", 1) == 42 && client.incr("sp:none", 1) == -1);
        tried("decr", () -> client.decr("sp:n", 50) == 0);
        tried("delete", () -> client.delete("sp:b").get() && !client.delete("sp:b").get());
        tried("touch", () -> client.touch("sp:a", 60).get() && !client.touch("sp:none", 60).get());
        tried("expiry", SpymemcachedClient::expiry);
        tried("large", SpymemcachedClient::large);
        tried("many", SpymemcachedClient::many);
        tried("version", () -> !client.getVersions().isEmpty());
        tried("stats", () -> !client.getStats().values().iterator().next().isEmpty());
        tried("flush_all", () -> client.flush().get());
        client.shutdown();
    }
}
