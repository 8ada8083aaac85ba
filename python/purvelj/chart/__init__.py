"""Pictures of plans and of accounts, as SVG or PNG."""

from purvelj.chart.accounts import draw_shares
from purvelj.chart.files import save
from purvelj.chart.plan import draw_plan
from purvelj.story import Story, story_of
from purvelj.views import PlanView, Share, plan_view, shares

__all__ = ["PlanView", "Share", "Story", "draw_plan", "draw_shares", "plan_view", "save", "shares", "story_of"]
