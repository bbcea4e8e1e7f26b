"""The job of a report: its image's bytes and each run's round and input (docs/FORMATS.md, "Job")."""
import json
import os
import re

DIGITS = re.compile('(?:[0-9a-fA-F]{2})*')


class WrongJob(Exception):
    """The file is no job, or not that of the report."""


class JobFile:
    """A job: the image's path and bytes, and for each run its round, mode and input in hexadecimal digits."""

    def __init__(self, path):
        try:
            with open(path, 'rb') as file:
                told = json.load(file)
        except (ValueError, RecursionError) as error:
            raise WrongJob(f'{path}: it is no JSON text') from error
        try:
            self.image_path = self.find(told['image'], path)
            self.limits = (told['workers'], told['checks'], told['budget'])
            self.rounds = len(told['rounds'])
            self.runs = [(place, each['mode'], data) for place, each in enumerate(told['rounds'])
                         for data in each['inputs']]
        except KeyError as error:
            raise WrongJob(f'{path}: it is no job: {error.args[0]!r} is missing') from error
        except (TypeError, ValueError) as error:
            raise WrongJob(f'{path}: it is no job; `tools/make_job.py --explain {path}` says why') from error
        for place, each in enumerate(told['rounds']):
            for number, data in enumerate(each['inputs']):
                if not isinstance(data, str) or not DIGITS.fullmatch(data):
                    raise WrongJob(f'{path}: it is no job: round {place}, input {number} is no even number of '
                                   'hexadecimal digits')
        with open(self.image_path, 'rb') as file:
            self.image = file.read()

    @staticmethod
    def find(image, path):
        """The image as it is named, from the caller's folder as the program takes it, else from the job's."""
        beside = os.path.join(os.path.dirname(path), image)
        found = beside if not os.path.exists(image) and os.path.exists(beside) else image
        return './' + found if found.startswith('-') else found

    def agree(self, report, path):
        """Refuses where the report is of another job: other limits, rounds or modes of runs."""
        job = report.job
        for name, here, there in (
                ('workers', self.limits[0], job.workers), ('checks', self.limits[1], job.checks),
                ('budget', self.limits[2], job.budget), ('rounds', self.rounds, job.rounds),
                ('runs', len(self.runs), job.runs)):
            if here != there:
                raise WrongJob(f'{path}: it is not the job of this report: {name} {here}, in the report {there}')
        for entry in report.entries:
            if self.runs[entry.run][1] != entry.mode:
                raise WrongJob(f'{path}: it is not the job of this report: run {entry.run} is '
                               f'{self.runs[entry.run][1]}, in the report {entry.mode}')

    def input_of(self, run):
        """The input's bytes of a run."""
        return bytes.fromhex(self.runs[run][2])
