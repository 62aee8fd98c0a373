# Sourced by the scripts of the folders beside this one: sets `jacoco` to the class path of JaCoCo's library.
core=/usr/share/java/org.jacoco.core.jar
[ -f "$core" ] || { echo "no $core: apt-get install libjacoco-java" >&2; exit 2; }
jacoco=$core:/usr/share/java/asm.jar:/usr/share/java/asm-tree.jar:/usr/share/java/asm-commons.jar
