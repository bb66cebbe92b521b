"""Puts a page together from a setting and its answer."""

from dataclasses import replace
from fractions import Fraction
from html import escape

from second_opinion.answer import Answer, InfeasibleAnswer, OptimalAnswer, TableAnswer, TooWideAnswer, UnboundedAnswer
from second_opinion.conditions import condition_line
from second_opinion.required_answer import RequiredAnswer
from second_opinion.setting import GeneralSetting
from second_opinion.show.draw import LETTERS, matrices, pattern_definitions, swatch, used_outcomes
from second_opinion.show.facts import Condition, Play, Prior, conditions, name_of
from second_opinion.show.parts import alert, big, big_value, figure, hidden, made_from, paragraph, section, whole
from second_opinion.show.tables import (
    agents_table, payments_tables, prior_table, utilities_table, utility_table, value_table,
)
from second_opinion.show.text import (
    asked_words, count, html_name, html_number, interdependent, listed, objective_words, payments_words, rational_words,
    truth_words,
)
from second_opinion.show.why import equal_section, infeasible_section, too_wide_section

MANY_PROFILES = 64  # beyond this the utilities and the prior by profile are left to the file

KINDS = {
    OptimalAnswer: "an optimal mechanism",
    TableAnswer: "a mechanism",
    UnboundedAnswer: "an objective without a bound",
    InfeasibleAnswer: "no mechanism",
    TooWideAnswer: "too wide",
}


class Page:
    """A page about an answer. `names` are those of the two files and `remark` is told below the heading, all as HTML; `home`
    is the name of a page that lists this one, or None."""

    def __init__(
        self, setting: GeneralSetting, said: Answer | RequiredAnswer, title: str, names: list[str], remark: str = "",
        home: str | None = None,
    ) -> None:
        self.setting = setting
        self.asked = said.conditions if isinstance(said, RequiredAnswer) else []
        self.answer = answer = said.said if isinstance(said, RequiredAnswer) else said
        self.also = " and of the designer" if self.asked else ""
        self.title = title
        self.names = names
        self.remark = remark
        self.home = home
        self.prior = Prior(setting)
        self.rows = conditions(setting, self.asked)
        self.mechanism = getattr(answer, "mechanism", None)
        self.play = Play(setting, self.prior, self.mechanism) if self.mechanism else None
        self.equal: set[int] = set()
        self.broken: list[tuple[Condition, int, int]] = []
        if self.play:
            self.try_conditions()

    def try_conditions(self) -> None:
        """Which conditions hold with equality, and which are broken."""
        for row in self.rows:
            if row.kind != "profile":
                left, right = self.play.sides(row)
                if left == right:
                    self.equal.add(row.index)
                elif left < right:
                    self.broken.append((row, left, right))

    def html(self) -> str:
        """The whole page."""
        defs, parts = "", [self.verdict(), self.setting_section()]
        if self.play:
            defs = pattern_definitions(used_outcomes(self.play))
            defs = hidden(defs)
            parts += [self.lotteries_section(), self.payments_section(), self.utility_section(), equal_section(self)]
        elif isinstance(self.answer, TooWideAnswer):
            parts.append(too_wide_section(self.answer.paths))
        else:
            parts.append(infeasible_section(self))
        return whole(self, defs + "".join(parts))

    def kind(self) -> str:
        """The kind of the answer, in a few words."""
        return ("under conditions, " if self.asked else "") + KINDS[type(self.answer)]

    def value(self) -> Fraction | None:
        """The value of an optimal answer, or None."""
        return self.play.value() if isinstance(self.answer, OptimalAnswer) else None

    def verdict(self) -> str:
        """What the answer says, above all else, and what is wrong with it where that is easily seen."""
        if isinstance(self.answer, OptimalAnswer):
            made = big_value(Fraction(*self.answer.value)) + paragraph(
                "The answer says that this mechanism is optimal: no other that meets the conditions has a greater "
                "value."
            )
        elif isinstance(self.answer, TableAnswer):
            made = big_value(self.play.value()) + paragraph(
                "A mechanism of which the answer claims nothing. Its value was computed for this page."
            )
        elif isinstance(self.answer, UnboundedAnswer):
            made = big("No bound") + paragraph(
                "The answer says that the objective has no bound. Below stand a mechanism, and payments that may be "
                "added to it as often as one likes: all conditions stay met, and the value grows each time."
            )
        elif isinstance(self.answer, InfeasibleAnswer):
            made = big("No mechanism") + paragraph(
                f"The answer says that no mechanism meets the conditions of this setting{self.also}."
            )
        else:
            made = big("Too wide") + paragraph(
                "A number on the way to the answer grew beyond the width that was asked for. This says nothing of the "
                "setting: it may have a best mechanism, or none."
            )
        if self.play and not self.broken:
            made += paragraph(f"The mechanism meets all conditions of the setting{self.also}.")
        wrong = "Not admissible." if isinstance(self.answer, TableAnswer) else "This answer is wrong."
        return f'<div class="verdict">\n{made}</div>\n' + "".join(alert(wrong, words) for words in self.mistakes())

    def mistakes(self) -> list[str]:
        """What is wrong with an answer that has a mechanism, as sentences of HTML."""
        found = []
        if isinstance(self.answer, OptimalAnswer) and self.play.value() != Fraction(*self.answer.value):
            value = html_number(self.play.value())
            found.append(f"The value of the mechanism below is {value}, and not what the answer says.")
        if self.broken:
            row, left, right = self.broken[0]
            found.append(
                f"The mechanism breaks {count(len(self.broken), 'condition')} of the setting{self.also}, first "
                f"{html_name(name_of(self.setting, row))}: {html_number(left)} where at least {html_number(right)} is "
                "demanded."
            )
        if isinstance(self.answer, UnboundedAnswer) and not self.gains():
            found.append("The added payments do not show it: they break a condition, or the value does not grow.")
        return found

    def added(self) -> Play:
        """The added payments of an unbounded answer, as a mechanism without chances."""
        assert isinstance(self.answer, UnboundedAnswer)
        nothing = [0] * len(self.setting.outcomes)
        lotteries = {profile: nothing for profile in self.mechanism.lotteries}
        return Play(self.setting, self.prior, type(self.mechanism)(self.mechanism.den, lotteries, self.answer.rays))

    def gains(self) -> bool:
        """Whether the added payments of an unbounded answer keep all conditions and gain."""
        added = self.added()
        if added.value() <= 0:
            return False
        for row in self.rows:
            if row.kind != "profile":
                asked = row.asked and replace(row.asked, num=0)
                left, right = added.sides(replace(row, asked=asked))
                if left < (0 if row.kind == "rational" else right):
                    return False
        return True

    def setting_section(self) -> str:
        """The setting in a few words, and its agents."""
        setting = self.setting
        profiles = setting.profile_count()
        who = listed(f"{escape(agent.name)} ({count(len(agent.types), 'type')})" for agent in setting.agents)
        facts = [
            ("Agents", f"{who}; {count(profiles, 'profile')}"),
            ("Outcomes", escape(", ".join(setting.outcomes))),
            ("Maximised", escape(objective_words(setting))),
            ("Truth", truth_words(setting)),
            ("Rationality", rational_words(setting)),
            ("Payments", payments_words(setting)),
        ]
        if self.asked:
            asked = ((escape(condition_line(each, setting)), escape(asked_words(setting, each))) for each in self.asked)
            facts.append(("The designer asks", "; ".join(f"<code>{line}</code>: {words}" for line, words in asked)))
        text = "".join(f"<dt>{term}</dt><dd>{words}</dd>\n" for term, words in facts)
        text = f"<dl>\n{text}</dl>\n{agents_table(setting, self.prior)}"
        few = profiles <= MANY_PROFILES
        if setting.prior is not None:
            text += paragraph("The types of the agents may depend on each other.")
            text += prior_table(setting, self.prior) if few else paragraph("The file has the weight of each profile.")
        if interdependent(setting):
            text += paragraph("What an outcome is worth may depend on the true types of all agents.")
            for agent, its in enumerate(setting.agents):
                if its.utility_at is not None and few:
                    text += utilities_table(setting, agent)
                elif its.utility_at is not None:
                    text += paragraph(f"The file has the utilities of {escape(its.name)}.")
        return section("The setting", text)

    def lotteries_section(self) -> str:
        """The chances of the outcomes at each profile, with their legend."""
        setting, used = self.setting, used_outcomes(self.play)
        text = "A bar for each report: "
        if len(setting.agents) > 1:
            first, second = (escape(agent.name) for agent in setting.agents[-2:])
            text = f"A row for each report of {first}, a column for each report of {second}: "
        if len(setting.agents) > 2:
            others = listed(escape(agent.name) for agent in setting.agents[:-2])
            text = f"A picture for each report of {others}; in it a" + text[1:]
        text = paragraph(text + "the share of an outcome in a bar is its chance, which stands below as a fraction.")
        keys = "".join(
            f"<li>{swatch(outcome)} <span>{LETTERS[outcome]}: {escape(setting.outcomes[outcome])}</span></li>\n"
            for outcome in used
        )
        text += f'<ul class="legend" aria-label="Legend">\n{keys}</ul>\n'
        unused = [name for outcome, name in enumerate(setting.outcomes) if outcome not in used]
        if unused:
            text += paragraph(f"Never chosen: {escape(', '.join(unused))}.")
        figures, drawn = [], matrices(self.play)
        for place, matrix in enumerate(drawn):
            caption = ", ".join(f"{agent.name}: {agent.types[own]}" for agent, own in matrix.fixed)
            figures.append(figure(caption, matrix, f"chances{place}", matrix.title()))
        return section("The mechanism: chances", text + '<div class="flow">\n' + "".join(figures) + "</div>\n")

    def payments_section(self) -> str:
        """What each agent pays at each profile, and the added payments of an unbounded answer."""
        if not self.setting.payments:
            return ""
        amounts = self.play.payments()
        if not any(any(numbers) for numbers in amounts.values()):
            text = paragraph("Nobody pays anything at any profile.")
        else:
            got = any(amount < 0 for numbers in amounts.values() for amount in numbers)
            text = "The shade tells the size of a payment beside the greatest one"
            text += ". A number below 0 is what an agent gets (brown), another what it pays (blue)." if got else "."
            text = paragraph(text) + payments_tables(self.setting, amounts, "Payment")
        made = section("The mechanism: payments", text)
        if isinstance(self.answer, UnboundedAnswer):
            added = self.added()
            text = "These may be added to the payments above again and again. Each time the value grows by "
            text = paragraph(f"{text}{html_number(added.value())}.")
            text += payments_tables(self.setting, added.payments(), "Added payment")
            made += section("Payments that gain without end", text)
        return made

    def utility_section(self) -> str:
        """Expected utilities, and the parts of the value."""
        text = utility_table(self.setting, self.prior, self.play) + value_table(self.setting, self.play)
        return section("Expected utility and value", f'<div class="flow">\n{text}</div>\n')

    def foot(self) -> str:
        """Where the page comes from, and what it is not."""
        text = made_from(self.names)
        if self.play:
            text += paragraph(
                "The utilities, the value and the conditions were computed for this page from the setting and the "
                "mechanism. That no mechanism is better is not tried here: "
                "<code>mechdes check</code> does that."
                if isinstance(self.answer, OptimalAnswer)
                else "The utilities, the value and the conditions were computed for this page from the setting and the "
                "mechanism."
            )
        return text
