"""All exercises with variants, by their numbers."""
import exercise_machines
import exercise_policies
import exercise_tables
import exercise_times
from exercise_base import EXERCISES, Exercise, Fault, Part, Rules, Variant, variant

__all__ = ["EXERCISES", "Exercise", "Fault", "Part", "Rules", "Variant", "variant",
           "exercise_machines", "exercise_policies", "exercise_tables", "exercise_times"]
