fn main() -> std::process::ExitCode {
    goblin_mach_tools::machresolve()
}
