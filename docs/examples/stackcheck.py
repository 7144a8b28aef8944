"""An extra script of PlatformIO: the build fails if the stack may not fit, or if a place is left to review."""

Import("env")  # noqa: F821

# --emit-relocs keeps the linker's records, which name every function whose address is taken
env.Append(CCFLAGS=["-gdwarf-4"], LINKFLAGS=["-Wl,--emit-relocs"])  # noqa: F821
env.AddPostAction(  # noqa: F821
    "$BUILD_DIR/${PROGNAME}.elf",
    env.VerboseAction('stackcheck "$TARGET" --spec "$PROJECT_DIR/stack.spec" --margin 64', "Checking the stack of $TARGET"),  # noqa: F821
)
