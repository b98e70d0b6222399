"""How BenchExec starts the command varisat on a DIMACS CNF text, and what it reads of it: sat, unsat, unknown or an error. In a benchmark's
definition the tool is `benchexec_tools.varisat`, where PYTHONPATH names the folder above this file's."""
import benchexec.result as result
import benchexec.tools.template

# The line that comes with each status, and what is told of it.
VERDICTS = {10: ("s SATISFIABLE", "sat"), 20: ("s UNSATISFIABLE", "unsat"), 0: ("s UNKNOWN", result.RESULT_UNKNOWN)}


class Tool(benchexec.tools.template.BaseTool2):
    """The command `varisat solve`."""

    def executable(self, tool_locator):
        return tool_locator.find_executable("varisat")

    def name(self):
        return "varisat"

    def version(self, executable):
        return self._version_from_tool(executable, line_prefix="varisat ").partition(",")[0]

    def cmdline(self, executable, options, task, rlimits):
        return [executable, "solve", *options, task.single_input_file]

    def determine_result(self, run):
        verdicts = [line.strip() for line in run.output if line.startswith("s ")]
        line, told = VERDICTS.get(run.exit_code.value, ("", result.RESULT_ERROR))
        return told if verdicts == [line] else result.RESULT_ERROR
