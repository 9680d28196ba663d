"""Runs the constraints of a project over its design."""
import os
import pathlib
import re
import tempfile

from lizdrog_tools.files import InputFault
from lizdrog_tools.importing.constraints import Constraints
from lizdrog_tools.importing.design import Design
from lizdrog_tools.importing.fans import FanQueries
from lizdrog_tools.importing.project import read_as
from lizdrog_tools.importing.queries import Queries
from lizdrog_tools.importing.report import Place, Report
from lizdrog_tools.importing.sdc_commands import TimingCommands
from lizdrog_tools.importing.session import Session
from lizdrog_tools.importing.tcl import CommandFault, NoTcl, find_tcl

# Commands without an effect on slacks: limits, wishes of synthesis, power, settings and printing of tools.
WITHOUT_EFFECT = """
    check_design check_timing create_voltage_area date define_corners define_proc_attributes define_user_attribute
    echo group_path parse_proc_arguments printvar report_checks report_clock report_clocks report_constraint
    report_exceptions report_port report_timing set_app_options set_app_var set_attribute set_auto_disable_drc_nets
    set_boundary_optimization set_cell_internal_power set_clock_gating_check set_clock_gating_style set_cmd_units
    set_cost_priority set_critical_range set_debug_level set_default_switching_activity set_disable_clock_gating_check
    set_dont_touch set_dont_touch_network set_dont_use set_fanout_load set_fix_hold set_fix_multiple_port_nets
    set_host_options set_isolate_ports set_layer_rc set_level_shifter_strategy set_level_shifter_threshold
    set_max_area set_max_capacitance set_max_dynamic_power set_max_fanout set_max_leakage_power set_max_transition
    set_message_info set_min_capacitance set_min_fanout set_min_pulse_width set_min_transition set_noise_margin
    set_placement_padding set_prefer set_propagated_clock_network set_register_merging set_size_only set_svf
    set_switching_activity set_target_library_subset set_ungroup set_units_display set_user_attribute
    set_verification_top set_voltage set_wire_rc suppress_message unsuppress_message update_timing write_sdc
""".split()
# Commands that change slacks and have no counterpart.
LOST = {
    "create_generated_clock": "its registers keep the clock that reaches them, or have none and are not tested",
    "set_max_delay": "the paths keep the limit that the clocks give, or none",
    "set_min_delay": "the paths keep the limit that the clocks give, or none",
    "set_ideal_network": "the network keeps its delays",
    "set_ideal_net": "the net keeps its delay",
    "set_ideal_latency": "the network keeps its delays",
    "set_ideal_transition": "the network keeps its slews",
    "set_sense": "the clock goes on where it shall stop or be turned",
    "set_clock_sense": "the clock goes on where it shall stop or be turned",
    "set_data_check": "the test is not made",
    "set_annotated_delay": "the delay is computed",
    "set_annotated_check": "the test has its value of the library",
    "set_annotated_transition": "the slew is computed",
    "set_resistance": "the net keeps its resistance",
    "set_max_time_borrow": "nothing is borrowed in Lizdrog",
    "set_clock_jitter": "the uncertainty stays as it is",
    "set_drive": "the port's slew stays as it is",
    "read_sdf": "delays are computed",
    "set_path_margin": "the paths keep their slack",
    "set_wire_load_selection_group": "nets without parasitics have no wires",
    "unknown-command": "",
    "set_port_fanout_number": "nets without parasitics have no wires",
}
LIMITS = {"set_max_fanout", "set_max_transition", "set_max_capacitance", "set_min_capacitance"}
WIRE_LOADS = ("set_wire_load_model", "set_wire_load_mode", "set_wire_load_min_block_size")
WHERE = re.compile(r'\(file "(.*?)" line (\d+)\)')


class Runner:
    """Answers the commands of the constraints, one after the other."""

    def __init__(self, design: Design, report: Report, folder: pathlib.Path):
        self.session = Session(design, report)
        self.constraints, self.folder = Constraints(), folder
        self.timing = TimingCommands(self.session, self.constraints)
        self.queries = Queries(self.session, self.constraints)
        self.originals: dict[str, str] = {}
        self.copies = 0
        self.fault: tuple[str, Place] | None = None
        self.work = tempfile.TemporaryDirectory()
        self.commands = {
            **self.queries.commands,
            **FanQueries(self.session, self.constraints).commands,
            **self.timing.commands,
            "source": self.source,
            "current_design": self.current_design,
            "current_instance": self.current_instance,
            "set_operating_conditions": self.set_operating_conditions,
            **dict.fromkeys(WIRE_LOADS, self.wire_load),
            **dict.fromkeys(WITHOUT_EFFECT, self.without_effect),
            **dict.fromkeys(LOST, self.lost),
        }

    def names(self) -> list[str]:
        """The commands that Tcl has to know; `source` and what is no command are its own."""
        return [it for it in self.commands if it not in ("source", "flatten", "unknown-command")]

    def answer(self, words: list[str]) -> str:
        name, file, line, *rest = words
        self.session.place = Place(self.originals.get(file, file), int(line))
        self.session.command = name
        try:
            return self.commands[name](rest) or ""
        except IndexError:
            self.fault = f"{name} lacks a word", self.session.place
        except CommandFault as why:
            self.fault = str(why), self.session.place
        raise CommandFault(self.fault[0])

    # ------------------------------------------------------------------------------------------ files

    def copy(self, name: str) -> str:
        """A copy of a file that Tcl can read, unpacked where it is compressed."""
        self.copies += 1
        made = os.path.join(self.work.name, f"part{self.copies}.sdc")
        with open(made, "w", encoding="latin-1") as file:
            file.write(read_as(name, "sdc", "sdc", may_be_empty=True))
        self.originals[made] = name
        return made

    def source(self, words: list[str]) -> str:
        name = words[-1]
        places = [os.path.join(os.path.dirname(self.session.place.file), name), str(self.folder / name), name]
        found = next((it for it in places if os.path.isfile(it)), None)
        if found is None:
            raise CommandFault(f"source: there is no file {name}")
        return self.copy(found)

    def run(self, name: str) -> None:
        """Runs one file of constraints; what stops it is an error with its place."""
        made = self.copy(name)
        said = find_tcl(self.names(), self.answer).run(made, str(self.folder.resolve()))
        if said[0] != "ok":
            if self.fault and self.fault[0] == said[1] and self.fault[1].line:
                raise InputFault(self.fault[1].file, self.fault[1].line, said[1])
            places = [
                (self.originals[file], int(line)) for file, line in WHERE.findall(said[2]) if file in self.originals
            ]
            raise InputFault(*(places[0] if places else (name, None)), said[1])

    # ------------------------------------------------------------------------------------------ commands

    def current_design(self, words: list[str]) -> str:
        mine = self.session.design.netlist.name
        for name in words:
            if name != mine:
                self.session.lose("current-design", f"current_design {name}: the design is {mine}")
        return mine

    def current_instance(self, words: list[str]) -> str:
        if words and words[0] not in ("", "/"):
            raise CommandFault("current_instance is not read: write names from the top")
        return ""

    def without_effect(self, words: list[str]) -> str:
        name = self.session.command
        self.session.drop(name, "nothing is tested against it" if name in LIMITS else "it changes no slack")
        return ""

    def lost(self, words: list[str]) -> str:
        name = self.session.command
        if name == "unknown-command":
            self.session.lose(name, f"there is no command {words[0]}")
        else:
            self.session.lose(name, f"{name} has no counterpart: {LOST[name]}")
        return ""

    def wire_load(self, words: list[str]) -> str:
        self.constraints.wire_loads.append((self.session.place, f"{self.session.command} {' '.join(words)}"))
        return ""

    def set_operating_conditions(self, words: list[str]) -> str:
        """Conditions matter where libraries scale by them; the kind of analysis is always early against late."""
        one = dict.fromkeys(
            ("-analysis_type", "-library", "-max", "-min", "-max_library", "-min_library", "-object_list"), 1
        )
        said = self.session.parse(words, one)
        kind = said.value("-analysis_type")
        if kind not in (None, "on_chip_variation"):
            self.session.lose(
                "analysis-type",
                f"set_operating_conditions -analysis_type {kind}: setup and hold are tested with early against late "
                "delays",
            )
        names = [*said.plain, *said.values.get("-max", []), *said.values.get("-min", [])]
        for name in names:
            if any(scales(it.library.frame) for it in self.session.design.cells.frames):
                self.session.lose(
                    "operating-conditions",
                    f"set_operating_conditions {name}: the library's factors of voltage and temperature are not "
                    "applied",
                )
            else:
                self.session.drop(
                    "operating-conditions", f"set_operating_conditions {name}: no library scales its delays"
                )
        return ""


def scales(frame) -> bool:
    """Whether a library has factors by which conditions scale delays."""
    for item in frame.attributes:
        if item.name.startswith("k_") and item.values and item.values[0].strip("0. ") != "":
            return True
    return False


def run_constraints(files: list[str], design: Design, report: Report, folder: pathlib.Path) -> Constraints:
    """What the files of constraints say of a design, one file after the other."""
    runner = Runner(design, report, folder)
    try:
        for name in files:
            runner.run(name)
    except NoTcl as why:
        raise InputFault(files[0], None, str(why)) from why
    finally:
        runner.work.cleanup()
    return runner.constraints
