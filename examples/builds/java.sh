# Sourced behind begin.sh: two classes and the runtime of examples/java-machine, compiled, and the folders of jars.
jars=/usr/share/java
mkdir -p src/shop classes runtime
cat > src/shop/Price.java <<'JAVA'
package shop;

public class Price {
    public static int abs(int cents) {
        return cents < 0 ? -cents : cents;
    }

    public static int half(int cents) {
        return cents / 2;
    }
}
JAVA
javac --release 8 -nowarn -d classes src/shop/*.java 2> said
machine=$top/examples/java-machine
javac --release 8 -nowarn -d runtime "$machine"/RunCovered.java "$machine"/org/jacoco/agent/rt/internal/Offline.java 2> said
